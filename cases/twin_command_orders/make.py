"""Writes the plant of examples/heating/order.blocks for three orders of the commands and three sets of sensors."""
import os
import re
import sys

sys.path.append(os.path.join(os.environ["TOP"], "tools"))
from blocks import model_of  # noqa: E402

ORDERS = {"open_start_stop_close": "open start stop close", "open_start_close_stop": "open start close stop", "start_open_close_stop": "start open close stop"}
# What is left out of the labels.
SENSORS = {"flow": "-pressed|-slack", "pressure": "-flow|-dry", "both": None}

with open(os.path.join(os.environ["TOP"], "examples", "heating", "order.blocks"), encoding="utf-8") as it:
    text = it.read()
for order, commands in ORDERS.items():
    model = model_of(text, zip("ABCD", commands.split()))
    for sensors, unseen in SENSORS.items():
        seen = re.sub(unseen, "", model).replace("alarm NOW ", "") if unseen else model
        with open(f"{order}_{sensors}.des", "w", encoding="ascii") as it:
            it.write(seen)
