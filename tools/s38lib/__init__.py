"""What the tools for decks and logs share: reading of decks and logs, and the tables of the pages."""
