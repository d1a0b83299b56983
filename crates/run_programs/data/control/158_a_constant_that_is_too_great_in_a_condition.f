      IF (I.EQ.2147483648) I=2
      END
