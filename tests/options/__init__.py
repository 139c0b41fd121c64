"""The table of options, beside iptables and beside the kernel."""
