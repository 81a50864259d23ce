"""The command avroreg-nginx: nginx in front of avroreg, from one template and one file of settings."""
