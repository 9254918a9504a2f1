"""Many projects that are asked as one."""
