"""What gridmaster-plan is made of: a cluster is asked (sources, site), played on (forecast, reasons, trial), laid out (layout,
lanes, waiting) and drawn (picture, terminal); gathering puts the first two together, and plan has what all of them share.
"""
