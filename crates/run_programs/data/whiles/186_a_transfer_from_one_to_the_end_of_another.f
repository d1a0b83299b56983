      DO WHILE (I.LT.3)
      I=I+1
      GO TO (10,20),I
   10 END DO
      DO WHILE (J.LT.3)
      J=J+1
   20 END DO
      END
