"""What the scripts for planners share: runs of taxi-tools, tables for spreadsheets, flights, stands and orders."""
