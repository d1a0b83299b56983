      DO10WHILE,(I)
      END
