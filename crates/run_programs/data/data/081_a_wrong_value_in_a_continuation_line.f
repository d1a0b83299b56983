      INTEGER A(4)
      I=1
      DATA A/1,2,
C     A LOGICAL VALUE
     1  .TRUE.,4/
      END
