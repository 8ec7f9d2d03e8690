"""Campaigns: many calls by one plan, on the processes of a machine or on a Dask cluster, and what
their table tells."""
