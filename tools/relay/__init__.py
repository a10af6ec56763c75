"""What tools/serve_relay is made of: the fronts, the servers behind them, how they are asked, and what is looked at."""
