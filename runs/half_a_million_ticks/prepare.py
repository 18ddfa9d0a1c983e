# Half a million ticks, before each of which the opacity is set to 0 over ten ticks: each takes a tenth of what is left, in whole
# millionths, and 9 millionths remain.
TICKS = 500_000
opacity = 1_000_000
script = ["1.1 PLAY 1-0 RED"]
output = ["1.1 202 PLAY OK"]
for tick in range(1, TICKS + 1):
    opacity -= opacity // 10
    byte = (255 * opacity + 500_000) // 1_000_000
    script += ["1.1 MIXER 1-0 OPACITY 0 10", "T"]
    output += ["1.1 202 MIXER OK", f"F 1 {tick}", f"0000{byte:02x}{byte:02x}"]
script += ["1.1 MIXER 1-0 OPACITY"]
output += ["1.1 201 MIXER OK", f"1.1 0.{opacity:06}"]
for name, lines in (("input", script), ("output", output)):
    with open(name, "w") as it:
        it.writelines(f"{line}\n" for line in lines)
