# CPU, where none is given: the archive of front/lib for the machine that CC makes programs for. front/c and front/postgres
# include this.
triple = $(shell $(CC) -dumpmachine)
machine = $(firstword $(subst -, ,$(triple)))
linux_x86_64 = x86-64-v2
linux_aarch64 = aarch64
none = no archive is for $(or $(triple),the machine of $(CC)): take one by `make -C front/c from-source` and CPU=from-source
CPU ?= $(or $(if $(findstring -linux,$(triple)),$(linux_$(machine))),$(error $(none)))
