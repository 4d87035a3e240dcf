# Sourced by host/library, host/run and host/bench/measure: where the toolchain lies, and what runs an x86-64 program here.
#   kit        the toolchain's folder
#   emulator   what runs an x86-64 program; empty where the processor is one
kit=$(dirname "$(rt doc)")
emulator=
[ "$(uname -m)" = x86_64 ] || emulator=qemu-x86_64
