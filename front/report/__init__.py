"""The report: `bin/rohcfn report PROFILE .. -o FILE` writes one page of a profile and of its headers (docs/USAGE.md)."""
