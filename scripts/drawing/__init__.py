"""The parts of chart.py: what it reads, the axis of a tower, and the panels of the picture."""
