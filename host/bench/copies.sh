# Sourced by measure and count: glibc's memcpy and memset do without `rep movsb` and `rep stosb`. The emulator runs these a byte at a time,
# and a count has a whole copy as one instruction: plain C, which calls memcpy, would look slower, or cheaper, than it is.
far=100000000
export GLIBC_TUNABLES=glibc.cpu.x86_rep_movsb_threshold=$far:glibc.cpu.x86_rep_stosb_threshold=$far:glibc.cpu.x86_non_temporal_threshold=$far
