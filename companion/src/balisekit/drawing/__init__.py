"""Pictures of groups, messages and tracks, as shapes with coordinates."""
