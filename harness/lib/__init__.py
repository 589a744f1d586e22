"""What the scripts in run/ share."""
