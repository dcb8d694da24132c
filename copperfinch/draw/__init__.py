"""Pictures of logs, layouts and drives, as SVG."""
