      DO WHILE (I)
      I=I-1
      END DO
      END
