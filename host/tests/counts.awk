# awk -f host/tests/counts.awk docs/BENCHMARK.md COUNTS: the ratio of each counted line is the one that the page has, within three per cent,
# and the page has the lines that are counted and no other. So a change that makes a call dearer, or cheaper, has to say so there.
FNR == NR {
	if (/^## /) inside = /^## Counted/
	if (inside && /^\| .*[0-9] \|$/) {
		split($0, cell, " *\\| *")
		page[cell[2]] = cell[5]
	}
	next
}
{
	split($0, cell, "|")
	name = cell[1]; ratio = cell[2] / cell[3]; lines++
	if (!(name in page)) { print "counts: the page has no line '" name "'"; bad = 1 }
	else if (ratio > 1.03 * page[name] || ratio < 0.97 * page[name]) {
		printf "counts: %s: %.3f times plain C, and the page says %s\n", name, ratio, page[name]
		bad = 1
	}
	delete page[name]
}
END {
	for (name in page) { print "counts: the page's line '" name "' is not counted"; bad = 1 }
	if (!bad && lines) print "counts: " lines " lines, each ratio as docs/BENCHMARK.md has it"
	exit bad || !lines
}
