"""What registry-import and registry-export share: index lines, archives, and the ways to a registry."""
