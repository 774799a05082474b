"""A guest of QEMU with a kernel of Debian, for `checks/guest`: `make-guest` makes it, with `init` as its
first process, and `machine` runs it."""
