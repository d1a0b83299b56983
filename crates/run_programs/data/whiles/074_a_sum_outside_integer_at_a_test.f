      I=2147483640
C     A COMMENT.
      DO WHILE (I+I/I.GT.0)
      I=I+1
      J=J+1
      IF (J.GT.100) STOP 1
      END DO
      END
