"""The exporter of counts, and the alerts."""
