      I=48
      J=180
      DO WHILE (MAX(I,J).NE.MIN(I,J).AND.ABS(I-J).GT.0)
      IF (I.GT.J) I=I-J
      IF (J.GT.I) J=J-I
      END DO
      WRITE (6,10) I,J
   10 FORMAT (2I4)
      END
