          SX1    B1
          SX2    1000B
          SX3    B3
          SX4    X1+B2
+         SX5    X1
          END
