   10 I=I+1
      IF (I.LT.9) GO TO 010
      GO TO (00010,10),I
      END
