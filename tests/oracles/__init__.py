"""Programs written from the pages that answer a random log by trying each choice of its events, and what the built
programs answer to it. Each module has `compare`, which tries one log and says of which kind it was, and `KINDS`, those
that are sure to come up among a few hundred logs."""
