"""The blocks of examples/, written again by hand as Python data."""
from model.trees import Json, Object

CLOCKING: list[Json] = [{"clock": "clk_i", "reset": "rst_ni"}]
DEVICE: list[Json] = [{"protocol": "tlul", "direction": "device"}]

BRIDGE: Object = {
    "name": "bridge", "clocking": CLOCKING + [{"clock": "clk_far_i", "reset": "rst_far_ni"}],
    "bus_interfaces": [
        {"protocol": "tlul", "direction": "device", "name": "near"},
        {"protocol": "tlul", "direction": "device", "name": "far"},
        {"protocol": "tlul", "direction": "host"}],
    "registers": {
        "near": [
            {"name": "DOORBELL", "swaccess": "rw1s", "hwaccess": "hrw", "fields": [{"bits": "7:0"}]},
            {"window": {"name": "OUTBOX", "items": 16, "swaccess": "wo"}}],
        "far": [
            {"name": "CAUSE", "swaccess": "rw1c", "hwaccess": "hrw", "fields": [{"bits": "7:0"}]},
            {"window": {"name": "INBOX", "items": 16, "swaccess": "ro"}}],
    },
}

GPIO: Object = {
    "name": "gpio", "clocking": CLOCKING, "bus_interfaces": DEVICE,
    "interrupt_list": [{"name": "gpio", "width": 32}], "alert_list": [{"name": "fatal_fault"}],
    "registers": [
        {"name": "DATA_IN", "swaccess": "ro", "hwaccess": "hwo", "fields": [{"bits": "31:0"}]},
        {"name": "DIRECT_OUT", "swaccess": "rw", "hwext": True, "hwqe": True, "hwaccess": "hrw",
         "fields": [{"bits": "31:0"}]},
        {"name": "DIRECT_OE", "swaccess": "rw", "fields": [{"bits": "31:0"}]},
        {"name": "INTR_CTRL_EN_RISING", "swaccess": "rw", "fields": [{"bits": "31:0"}]},
        {"name": "INTR_CTRL_EN_FALLING", "swaccess": "rw", "fields": [{"bits": "31:0"}]},
    ],
}

INTC: Object = {
    "name": "intc", "clocking": CLOCKING, "bus_interfaces": DEVICE,
    "registers": [
        {"multireg": {"name": "PRIO_REGWEN", "count": 4, "compact": False, "swaccess": "rw0c", "hwaccess": "none",
                      "fields": [{"name": "EN", "bits": 0, "resval": 1}]}},
        {"multireg": {"name": "PRIO", "count": 4, "regwen": "PRIO_REGWEN", "regwen_multi": True, "swaccess": "rw",
                      "fields": [{"name": "LEVEL", "bits": "2:0"}]}},
        {"multireg": {"name": "PENDING", "count": 40, "swaccess": "rw1c", "hwaccess": "hrw",
                      "fields": [{"name": "P", "bits": 0}]}},
        {"name": "LOCK", "swaccess": "rw0c", "fields": [{"bits": 0, "resval": 1}]},
        {"name": "THRESHOLD", "regwen": "LOCK", "swaccess": "rw", "fields": [{"bits": "2:0"}]},
        {"name": "SOFT", "swaccess": "wo", "hwqe": True, "fields": [{"bits": "5:0", "name": "ID"}]},
        {"name": "ENABLE", "swaccess": "rw", "fields": [{"bits": "3:0", "mubi": True, "resval": False}]},
    ],
}

TIMER: Object = {
    "name": "timer", "clocking": CLOCKING, "bus_interfaces": DEVICE,
    "param_list": [{"name": "NumCompare", "default": 12}], "interrupt_list": [{"name": "expired"}],
    "registers": [
        {"name": "CTRL", "swaccess": "rw", "fields": [
            {"bits": 0, "name": "ENABLE"}, {"bits": "15:4", "name": "PRESCALE", "resval": 1}]},
        {"name": "COUNT", "swaccess": "ro", "hwaccess": "hwo", "fields": [{"bits": "31:0"}]},
        {"name": "MISSED", "swaccess": "rc", "hwaccess": "hrw", "fields": [{"bits": "7:0"}]},
        {"skipto": 0x40},
        {"window": {"name": "COMPARE", "items": "NumCompare", "byte-write": True}},
    ],
}

UART: Object = {
    "name": "uart", "clocking": CLOCKING, "bus_interfaces": DEVICE,
    "interrupt_list": [{"name": "tx_empty", "type": "status"}, {"name": "rx_over"}],
    "alert_list": [{"name": "fatal_fault"}],
    "registers": [
        {"name": "CTRL", "swaccess": "rw", "fields": [
            {"bits": "0", "name": "TX"}, {"bits": "1", "name": "RX"},
            {"bits": "31:16", "name": "NCO", "resval": 0x10}]},
        {"name": "STATUS", "swaccess": "ro", "hwext": True, "hwaccess": "hwo", "fields": [
            {"bits": "0", "name": "FULL"}, {"bits": "2", "name": "EMPTY", "resval": 1}]},
        {"multireg": {"name": "WIN", "count": 2, "cname": "W", "swaccess": "rw",
                      "fields": [{"bits": "3:0", "name": "VAL"}]}},
    ],
}

VAULT: Object = {
    "name": "vault", "clocking": CLOCKING, "bus_interfaces": DEVICE,
    "registers": [
        {"name": "OPEN", "swaccess": "rw", "hwaccess": "none", "shadowed": True, "fields": [{"bits": 0, "resval": 1}]},
        {"name": "KEY", "swaccess": "rw", "hwqe": True, "shadowed": True, "regwen": "OPEN", "fields": [
            {"bits": "15:0", "name": "ID"}, {"bits": "19:16", "name": "MODE", "resval": 3}]},
        {"multireg": {"name": "SHARE", "count": 2, "swaccess": "rw", "shadowed": True, "fields": [{"bits": "31:0"}]}},
    ],
}

EXAMPLES: dict[str, Object] = {
    "bridge": BRIDGE, "gpio": GPIO, "intc": INTC, "timer": TIMER, "uart": UART, "vault": VAULT}
