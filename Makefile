# A release, from what the gate proved: see release/README.md.
#
#   make dist     dist/h263rps-VERSION-x86_64-linux.tar.gz, Debian's packages beside it, a Containerfile and SHA256SUMS

dist:
	release/make_dist

.PHONY: dist
