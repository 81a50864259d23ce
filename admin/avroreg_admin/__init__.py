"""The operator's command of avroreg. `admin/README.md` says how to add to it."""
