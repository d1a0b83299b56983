      INTEGER ENDDO(5)
      DO I=1,5
      ENDDO(I)=2*I
      END DO (6-I) = ENDDO(6-I)+I
      END DO
      WRITE (6,10) ENDDO
   10 FORMAT (5I4)
      END
