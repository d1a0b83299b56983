      INTEGER A(.TRUE.)
      END
