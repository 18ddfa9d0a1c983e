# What a sheet writes whose 30 refused copies come behind a minute of a channel of one pixel.
with open("output", "w") as file:
    for tick in range(7349):
        if tick >= 7319:
            file.write("2.7 403 PAUSE ERROR\n")
        if tick == 7319:
            file.write("1.1 201 VERSION OK\n1.1 2.0 PLAYD\n")
        if tick < 7348:
            file.write(f"F 1 {tick + 1}\n00000000\n")
