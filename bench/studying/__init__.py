"""The study of docs/STUDY.md: its traces, its runs, what is measured in them, and the figures and tables of the page."""
