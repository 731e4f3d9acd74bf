"""What `vidlakost audit` finds of somebody else's controller."""
