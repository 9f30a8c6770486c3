"""Tops that are worked out by hand: two blocks behind one host, and two hosts with a crossbar in a crossbar and a FIFO."""
from __future__ import annotations

TWO = {
    "two.hjson": """{ name: "two"
  clocks: {srcs: [{name: "main"}]}
  resets: {nodes: [{name: "sys"}]}
  module: [
    {name: "cpu", type: "cpu", clock_srcs: {clk_i: "main"}, reset_connections: {rst_ni: "sys"}}
    {name: "a", type: "ta", base_addr: "0x40000000", clock_srcs: {clk_i: "main"}, reset_connections: {rst_ni: "sys"}}
    {name: "b", type: "tb", base_addr: "0x40001000", clock_srcs: {clk_i: "main"}, reset_connections: {rst_ni: "sys"}}
  ]
  xbar: [{name: "main", clock_srcs: {clk_i: "main"}}]
}
""",
    "xbar_main.hjson": """{ name: "main", clock: "clk_i"
  nodes: [{name: "cpu", type: "host"}, {name: "a", type: "device"}, {name: "b", type: "device"}]
  connections: {cpu: ["a", "b"]}
}
""",
    "cpu.hjson": """{ name: "cpu", clocking: [{clock: "clk_i", reset: "rst_ni"}]
  bus_interfaces: [{protocol: "tlul", direction: "host"}], registers: [] }
""",
    "ta.hjson": """{"name": "ta", "clocking": [{"clock": "clk_i", "reset": "rst_ni"}],
 "bus_interfaces": [{"protocol": "tlul", "direction": "device"}],
 "interrupt_list": [{"name": "i"}],
 "registers": [{"name": "R", "swaccess": "rw", "fields": [
    {"bits": "3:0", "name": "A"},
    {"bits": "7:4", "name": "B"}
 ]}]}
""",
}
TWO["tb.hjson"] = TWO["ta.hjson"].replace('"ta"', '"tb"')

UART = """{ name: "uart"
  clocking: [{clock: "clk_i", reset: "rst_ni"}]
  bus_interfaces: [{protocol: "tlul", direction: "device"}]
  interrupt_list: [
    {name: "tx_empty", type: "status", desc: "empty"}
    {name: "rx_over", desc: "overflow"}
  ]
  alert_list: [{name: "fatal_fault", desc: "bus"}]
  registers: [
    {name: "CTRL", desc: "control", swaccess: "rw", fields: [
      {bits: "0", name: "TX"}, {bits: "1", name: "RX"},
      {bits: "31:16", name: "NCO", resval: "0x10"}]}
    {name: "STATUS", desc: "status", swaccess: "ro", hwext: "true", hwaccess: "hwo", fields: [
      {bits: "0", name: "FULL"}, {bits: "2", name: "EMPTY", resval: "1"}]}
    {multireg: {name: "WIN", desc: "w", count: "2", cname: "W", swaccess: "rw",
      fields: [{bits: "3:0", name: "VAL"}]}}
  ]
}
"""

DUO = {
    "duo.hjson": """{ name: "duo"
  clocks: {srcs: [{name: "main"}], derived_srcs: [{name: "io"}]}
  resets: {nodes: [{name: "sys"}]}
  module: [
    {name: "cpu", type: "host", clock_srcs: {clk_i: "main"}, reset_connections: {rst_ni: "sys"}}
    {name: "dma", type: "host", clock_srcs: {clk_i: "main"}, reset_connections: {rst_ni: "sys"}}
    {name: "ram", type: "ram", base_addr: "0x10000000", clock_srcs: {clk_i: "main"}, reset_connections: {rst_ni: "sys"}}
    {name: "uart0", type: "uart", base_addr: "0x40000000", clock_srcs: {clk_i: "io"}, reset_connections: {rst_ni: "sys"}}
  ]
  xbar: [
    {name: "main", clock_srcs: {clk_main_i: "main"}}
    {name: "peri", clock_srcs: {clk_main_i: "main", clk_io_i: "io"}}
  ]
}
""",
    "xbar_main.hjson": """{ name: "main", clock: "clk_main_i"
  nodes: [
    {name: "cpu", type: "host"}
    {name: "dma", type: "host"}
    {name: "ram", type: "device"}
    {name: "peri", type: "device", xbar: true}
  ]
  connections: {cpu: ["ram", "peri"], dma: ["ram"]}
}
""",
    "xbar_peri.hjson": """{ name: "peri", clock: "clk_main_i"
  nodes: [
    {name: "main", type: "host", xbar: true}
    {name: "uart0", type: "device", clock: "clk_io_i"}
  ]
  connections: {main: ["uart0"]}
}
""",
    "host.hjson": """{ name: "host", clocking: [{clock: "clk_i", reset: "rst_ni"}]
  bus_interfaces: [{protocol: "tlul", direction: "host"}], registers: [] }
""",
    "ram.hjson": """{ name: "ram", clocking: [{clock: "clk_i", reset: "rst_ni"}]
  bus_interfaces: [{protocol: "tlul", direction: "device"}]
  registers: [{window: {name: "MEM", items: 4}}] }
""",
    "uart.hjson": UART,
}
