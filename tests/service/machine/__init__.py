"""A Debian tree as a virtual machine: its first file system, and the run of qemu."""
