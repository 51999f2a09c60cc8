"""The tables of docs/tables, and the places that have what they describe (`tools/tables`)."""
