"""Pictures and pages: networks, plans, waveforms, reports, and the pages of docs/ as HTML."""
