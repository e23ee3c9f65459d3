          IDENT  NAMES
          ABS
          ORG    100B
START     SX6    COUNT
          SA6    ANSWER
          NZ     X6,START
          PS
COUNT     EQU    5
ANSWER    BSS    1
          END
