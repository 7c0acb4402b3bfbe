"""Storms: random scenarios, made by a guide that knows what each event leads to."""
