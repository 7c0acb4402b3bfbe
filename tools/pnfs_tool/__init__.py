"""What `tools/pnfs` is made of: each module has one part of it."""
