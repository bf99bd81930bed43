; Sets R5 to 1, over and over.

again:  MOV R5, 1
        B again

        checkpoints 2, 4
