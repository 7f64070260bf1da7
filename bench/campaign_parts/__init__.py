"""The parts of bench/campaign.py."""
