// Stand-in: ids that only the calculation's passes name.
