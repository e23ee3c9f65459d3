          IDENT  FIRST
          ABS
          SX6    1
          SX7    X6+2
          PS
          END
