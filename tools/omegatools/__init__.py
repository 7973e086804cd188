"""Parts of the tools for those who run omega."""
