      INTEGER ENDDO
      ENDDO=1
      DO I=1,4
      ENDDO=ENDDO+I
      END DO = ENDDO*2
      END DO
      WRITE (6,10) I,ENDDO
   10 FORMAT (2I5)
      END
