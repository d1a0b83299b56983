      IF (J(1).EQ.1) I=2
      END
