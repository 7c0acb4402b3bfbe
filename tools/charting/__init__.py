"""Charts of runs: `runs` reads what is drawn off a transcript, `drawing` draws it as SVG."""
