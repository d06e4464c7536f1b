"""The modules of Haboob's tools; each command is a module with a `main`."""
