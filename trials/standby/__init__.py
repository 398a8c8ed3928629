"""Two machines that have one volume, and of which one serves a vault: what each fault does to its tills."""
