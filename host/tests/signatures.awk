# The exported signatures of crates/ts11_c/src, as assertions that a host's declarations are just these:
#   awk -f signatures.awk SOURCE..                   C, of ts11.h
#   awk -v rust=PATH -f signatures.awk SOURCE..      Rust, of the file ts11.rs at PATH
function set(type, in_c, in_rust) { name_of[type] = rust ? in_rust : in_c }

BEGIN {
	set("&mut [u8; 128]", "ts11_state *", "*mut State")
	set("&[u8; 128]", "const ts11_state *", "*const State")
	set("&mut [u8]", "uint8_t *, size_t", "*mut u8, usize")
	set("&[u8]", "const uint8_t *, size_t", "*const u8, usize")
	set("&mut usize", "size_t *", "*mut usize")
	set("&mut u8", "uint8_t *", "*mut u8")
	set("&mut bool", "bool *", "*mut bool")
	set("&mut u16", "uint16_t *", "*mut u16")
	set("usize", "size_t", "usize")
	set("u16", "uint16_t", "u16")
	set("bool", "bool", "bool")
	if (rust)
		printf "#[path = \"%s\"]\nmod ts11;\nuse ts11::{exported::*, State};\nfn main() {}\n", rust
	else
		print "#include \"ts11.h\""
}

/^pub extern "C" fn / {
	text = $0
	while (text !~ /\) -> [a-z0-9]+/) {
		getline
		text = text " " $0
	}
	name = text
	sub(/^pub extern "C" fn /, "", name)
	sub(/\(.*/, "", name)
	result = text
	sub(/.*\) -> /, "", result)
	sub(/[^a-z0-9].*/, "", result)
	sub(/^[^(]*\(/, "", text)
	sub(/\) -> .*/, "", text)
	n = split(text, parameter, ",")
	types = ""
	for (i = 1; i <= n; i++) {
		if (parameter[i] !~ /:/)
			continue
		type = parameter[i]
		sub(/^[^:]*: */, "", type)
		sub(/ *$/, "", type)
		# A type that is not in the table ends the test: nothing compiles it.
		types = types (types == "" ? "" : ", ") (type in name_of ? name_of[type] : "no type for " type)
	}
	if (rust)
		printf "const _: unsafe extern \"C\" fn(%s) -> %s = %s;\n", types, name_of[result], name
	else
		printf "_Static_assert(__builtin_types_compatible_p(__typeof__(%s), %s(%s)), \"%s\");\n", name, name_of[result], types, name
}
